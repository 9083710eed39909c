// Included by the build scripts of the comparison and of the benchmark.

/// What is replaced, by what, and how often it must occur.
const RECIPES: [(&str, &str, usize); 2] = [
    (
        "(self.a00 - self.a11).hypot(2.0 * self.a01)",
        "crate::recipe::hypot(self.a00 - self.a11, 2.0 * self.a01)",
        2,
    ),
    (
        "    let angle = 0.5 * (2.0 * information.a01).atan2(information.a00 - information.a11);\n    \
             let (sin, cos) = angle.sin_cos();\n",
        "    let (x, y) = (information.a00 - information.a11, 2.0 * information.a01);\n    \
             let (sin, cos) = crate::recipe::poll_sin_cos(x, y);\n",
        1,
    ),
];
