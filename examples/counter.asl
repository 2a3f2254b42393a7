global count;

fn main(t) {
  p = &count;
  atomic {
    x = *p;
    one = 1;
    y = x + one;
    *p = y;
  }
  return t;
}
