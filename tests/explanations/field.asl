global root;
global spare;

fn main(t) {
  outer = new 3;
  inner = new 2;
  f = &outer[1];
  r = &root;
  s = &spare;
  atomic {
    *f = inner;
    *r = outer;
    g = *f;
    h = &g[1];
    *h = s;
    d = *h;
    d = r;
  }
  return t;
}
