global count;

fn main(t) {
  p = &count;
  one = 1;
  atomic {
    x = *p;
  }
  y = x + one;
  atomic {
    *p = y;
  }
  out y;
  return t;
}
