namespace geometry {
enum class kind : unsigned char { circle, square };
template <typename T> struct box {
    T value;
    box(T v) : value(v) {}
    T get() const { return value; }
    static int made;
};
struct shape {
    kind k;
    shape(kind k) : k(k) {}
    virtual ~shape() {}
    virtual double area() const = 0;
    int sides() const { return k == kind::square ? 4 : 0; }
};
class square : public shape {
    double side;
public:
    explicit square(double s) : shape(kind::square), side(s) {}
    double area() const override;
    box<double> boxed() const { return box<double>(side); }
    double square::*member() { return &square::side; }
};
namespace detail { typedef int (*callback)(const shape &, int); struct table { callback calls[3]; }; }
}
using geometry::square;
extern geometry::detail::table handlers;
double total(const geometry::shape &a, const geometry::shape &b);
inline int twice(int n) { return n * 2; }
