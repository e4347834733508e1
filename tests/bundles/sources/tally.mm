#include "shape.hpp"
void operator delete(void *) noexcept {}
void operator delete(void *, unsigned long) noexcept {}
extern "C" void __cxa_pure_virtual() {}
__attribute__((objc_root_class)) @interface Painter { geometry::box<int> *held; }
- (double)paint:(const geometry::shape &)s;
@end
@implementation Painter
- (double)paint:(const geometry::shape &)s { return s.area() + held->get() + total(s, s); }
@end
int main() { geometry::square s(3.0); Painter *p = 0; return int([p paint:s]); }
