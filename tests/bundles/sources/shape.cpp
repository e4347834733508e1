#include "shape.hpp"
namespace { struct hidden { int h; int twice() { return h * 2; } }; int secret = 3; }
template <> int geometry::box<double>::made = 1;
static int count(const geometry::shape &s, int n) { hidden h = { n }; return s.sides() + h.twice() + secret; }
geometry::detail::table handlers = { { count, nullptr, nullptr } };
double geometry::square::area() const { return side * side; }
double total(const geometry::shape &a, const geometry::shape &b) {
    auto add = [&](double x) { return x + b.area(); };
    return add(a.area()) + twice(2);
}
