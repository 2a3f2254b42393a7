global box;

fn main(t) {
  a = new 1;
  b = new 1;
  c = new 1;
  p = &box;
  atomic {
    *p = a;
    *p = b;
    y = *p;
  }
  z = new 4;
  w = c;
  if t { w = y; }
  return t;
}
