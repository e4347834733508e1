__attribute__((objc_root_class)) @interface Tally { int count; }
@property int step;
+ (int)limit;
- (int)add:(int)n;
@end
@implementation Tally
+ (int)limit { return 10; }
- (int)add:(int)n { int (^twice)(int) = ^(int k) { return k * 2; }; count += twice(n) + self->_step; return count; }
@end
int use(Tally *t) { return [t add:[Tally limit]]; }
int main(void) { return use(0); }
