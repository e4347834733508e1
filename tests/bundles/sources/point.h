struct point { int x, y; };
enum color { RED, GREEN = 5, BLUE };
typedef struct point point_t;
extern point_t origin;
extern int counter;
int manhattan(const point_t *p);
int shade(enum color c, int level);
