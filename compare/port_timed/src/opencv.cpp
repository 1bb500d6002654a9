// OpenCV's AlignMTB on frames of one channel, in one thread. It always halves by taking every second sample and cuts at
// the median.

#include <cstddef>
#include <cstdint>

#include <opencv2/core.hpp>
#include <opencv2/photo.hpp>

static cv::Mat frame(const uint8_t *samples, size_t width, size_t height) {
    return cv::Mat(static_cast<int>(height), static_cast<int>(width), CV_8UC1, const_cast<uint8_t *>(samples));
}

// The step of two frames. Answers 0, or 1 where OpenCV throws.
extern "C" uint32_t opencv_shift(const uint8_t *reference, const uint8_t *target, size_t width, size_t height,
                                 uint32_t bits, uint8_t tolerance, int32_t *x, int32_t *y) {
    try {
        cv::setNumThreads(1);
        cv::Ptr<cv::AlignMTB> aligner = cv::createAlignMTB(static_cast<int>(bits), tolerance, false);
        cv::Point step = aligner->calculateShift(frame(reference, width, height), frame(target, width, height));
        *x = step.x;
        *y = step.y;
        return 0;
    } catch (...) {
        return 1;
    }
}
