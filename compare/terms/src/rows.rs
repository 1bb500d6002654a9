//! Rows of tables that have a column for each choice of a term.

use trials::camera::Shot;
use trials::camera::scene::Scene;

use crate::ask::Terms;
use crate::given::{GROUPS, LIGHTS, shots};
use crate::table::Row;

pub fn row(name: String, shots: Vec<Shot>, terms: &[Terms]) -> Row {
    let terms = terms.to_vec();
    Row { name, shots, terms }
}

/// A row for each scene.
pub fn by_scene(scenes: &[Scene], taken: Shot, terms: &[Terms]) -> Vec<Row> {
    let of_scene = |&scene: &Scene| row(scene.name(), shots(&[scene], taken), terms);
    scenes.iter().map(of_scene).collect()
}

/// A row for each group of scenes, after what is said of all.
pub fn by_group(of_all: &str, taken: Shot, terms: &[Terms]) -> Vec<Row> {
    let of_group = |&(group, scenes): &(&str, &[Scene])| {
        row(format!("{of_all}: {group}"), shots(scenes, taken), terms)
    };
    GROUPS.iter().map(of_group).collect()
}

/// The same for each light, with terms that may depend on its percentile.
pub fn by_light(terms: impl Fn(u8) -> Vec<Terms>) -> Vec<Row> {
    let of_light =
        |&(light, taken, percentile): &(&str, Shot, u8)| by_group(light, taken, &terms(percentile));
    LIGHTS.iter().flat_map(of_light).collect()
}
