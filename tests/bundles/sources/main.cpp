#include "shape.hpp"
void operator delete(void *) noexcept {}
void operator delete(void *, unsigned long) noexcept {}
extern "C" void __cxa_pure_virtual() {}
struct pair { int first; geometry::box<int> second; };
int main(int argc, char **) {
    square s(argc);
    geometry::square t(2.0);
    pair p = { twice(argc), geometry::box<int>(7) };
    int &&moved = static_cast<int &&>(p.first);
    return int(total(s, t)) + p.second.get() + moved + s.sides() + int(s.boxed().get()) + handlers.calls[0](s, 1);
}
