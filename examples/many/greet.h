int greet(int times);
int square(int side);
