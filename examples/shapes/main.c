#include "shapes.h"

static int twice(int n)
{
    return n + n;
}

int main(int argc, char **argv)
{
    struct shape shape = { twice(argc), 3 };
    return area(&shape);
}
