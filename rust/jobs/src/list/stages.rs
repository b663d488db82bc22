//! A job for each family of the stages, with both orders of its faces.

use super::{Job, List, asking_all};
use crate::{
    families::stages::stages,
    layout::{Face, Override},
};

pub fn jobs(list: &mut List) {
    for two in stages().chunks(2) {
        let stage = &two[0];
        let places = stage.faces.len() as u16;
        let mut job = Job {
            families: vec![(0..places).collect(), (0..places).rev().collect()],
            ..Job::default()
        };
        for (face, plan) in (0..).zip(&stage.faces) {
            job.faces.push(Face {
                held: true,
                font: plan.file(),
                number: 0,
            });
            job.overrides.push(Override {
                face,
                ..plan.given()
            });
        }
        for (asked, _) in &stage.asked {
            let attributes = (asked.ratio, asked.style, asked.weight);
            job.requests.push(asking_all(2, attributes));
        }
        list.accepted(format!("stages, {}", stage.name), &job);
    }
}
