struct shape {
    int width;
    int height;
};

int area(const struct shape *shape);
