//! What the keeper does for a plan and its script, drawn as an SVG: users and parts over the ticks, and the plan below.

mod graph;
mod lanes;
mod story;
mod svg;

use story::Story;
use svg::Svg;

const MARGIN: u32 = 12;

/// Why there is nothing to draw.
#[derive(Clone, Copy, Debug, PartialEq, Eq)]
pub enum NoPicture {
    /// No `run` stands before the end, or before a `new`.
    NoRun,
    /// The plan was refused.
    NoPlan,
}

/// The picture of an input's first plan and script.
pub fn of_input(input: &[u8]) -> Result<String, NoPicture> {
    let story = Story::of(input)?;
    let mut svg = Svg::new();
    let lanes = lanes::draw(&mut svg, &story, (MARGIN, MARGIN));
    let graph = graph::draw(&mut svg, &story, (MARGIN, lanes.1 + 2 * MARGIN));
    Ok(svg.finish(lanes.0.max(graph.0) + MARGIN, graph.1 + MARGIN))
}

#[cfg(test)]
mod tests {
    use super::*;

    const INPUT: &[u8] =
        b"part 0\npart 1 draws 2 5 needs 0 from 1 2 most 6\npart 2 needs 0 from 3 most 15 and 1 from 1 most 1\ngives 9\nrun\n\
        bad 2\nslow 1 3\nbad 9\n0 want 1 2\n1 want 2 1\n77 give\nnonsense\ntick 5\n0 give\ntick 100000\nleast\nnew\npart 0\nrun\n";

    /// Every tag that was opened is closed, in the right order, and no text holds what would be a tag.
    fn is_well_formed(svg: &str) -> bool {
        let mut open = Vec::new();
        for piece in svg.split('<').skip(1) {
            let Some((tag, text)) = piece.split_once('>') else { return false };
            if text.contains('>') || tag.matches('"').count() % 2 == 1 {
                return false;
            }
            let name = tag.trim_start_matches('/').split(' ').next();
            if tag.starts_with('/') {
                if open.pop() != name {
                    return false;
                }
            } else if !tag.ends_with('/') {
                open.extend(name);
            }
        }
        open.is_empty() && svg.starts_with("<svg ")
    }

    #[test]
    fn every_tag_is_closed() {
        assert!(is_well_formed(&of_input(INPUT).unwrap()));
        assert!(is_well_formed(&of_input(b"run\ntick 3\n").unwrap()));
        assert!(!is_well_formed("<svg ><g></svg>"));
    }

    #[test]
    fn a_lane_and_a_box_for_each_part_and_an_arrow_for_each_need() {
        let svg = of_input(INPUT).unwrap();
        let count = |class: &str| svg.matches(&format!("class=\"{class}\"")).count();
        assert_eq!((count("lane"), count("box"), count("need")), (3, 3, 3));
    }

    #[test]
    fn no_plan_no_picture() {
        assert_eq!(of_input(b"part 0\nnew\nrun\n"), Err(NoPicture::NoRun));
        assert_eq!(of_input(b"part 1\nrun\n"), Err(NoPicture::NoPlan));
    }
}
