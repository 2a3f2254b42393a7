global p;
global q;
fn main(t) {
  n = new 1;
  s = &p;
  p = &q;
  atomic {
    *s = n;
  }
  atomic {
    *p = t;
    r = &p;
    z = *r;
    *z = t;
  }
  return t;
}
