#!/usr/bin/env python3
"""prepare.py SOURCES FOLDER: copies the Rust's files from SOURCES into FOLDER, where rustc builds them as modules of one
program. Nothing is changed but the float methods that the Rust takes from the machine: each becomes a call of ours (ours.rs),
counted, and another count than the one below is a failure, since a method that is missed would win over ours in silence; and a
few private functions, which the run calls, get `pub(crate) ` before their name."""
import pathlib
import sys

UNCHANGED = [
    "constants.rs",
    "error.rs",
    "geometry/diagram.rs",
    "geometry/operations/overlaps.rs",
    "geometry/primitives/bounds.rs",
    "geometry/shapes/rectangle.rs",
    "geometry/traits.rs",
    "spec/combination.rs",
]

# file: (method of f64, the method of ours.rs that stands for it, how often it stands there)
CHANGED = {
    "geometry/primitives/point.rs": [
        (".hypot(", ".our_hypot(", 2),
        (".atan2(", ".our_atan2(", 2),
    ],
    "geometry/shapes/circle.rs": [
        (".sqrt()", ".our_root()", 6),
        (".sin()", ".our_sin()", 13),
        (".cos()", ".our_cos()", 12),
        (".atan2(", ".our_atan2(", 1),
        (".acos()", ".our_acos()", 4),
        (".asin()", ".our_asin()", 3),
    ],
}

# file: private functions that the run calls
OPENED = {
    "geometry/shapes/circle.rs": [
        "clipped_arc_integral_with_gradient",
        "horizontal_edge_inside_interval",
        "vertical_edge_inside_interval",
    ],
}


def changed(path: str, text: str) -> str:
    for theirs, ours, count in CHANGED[path]:
        found = text.count(theirs)
        if found != count:
            sys.exit(f"{path}: {theirs} stands there {found} times and not {count}")
        text = text.replace(theirs, ours)
    for name in OPENED.get(path, []):
        private = f"\nfn {name}("
        if text.count(private) != 1:
            sys.exit(f"{path}: fn {name} stands there {text.count(private)} times and not once")
        text = text.replace(private, f"\npub(crate) fn {name}(")
    # the trait that has our methods is brought in before the file's first `use`
    return text.replace("\nuse ", "\nuse crate::ours::Ours;\nuse ", 1)


def main() -> None:
    sources = pathlib.Path(sys.argv[1]) / "crates/eunoia/src"
    folder = pathlib.Path(sys.argv[2])
    for path in UNCHANGED + list(CHANGED):
        text = (sources / path).read_text()
        place = folder / path
        place.parent.mkdir(parents=True, exist_ok=True)
        place.write_text(changed(path, text) if path in CHANGED else text)


main()
