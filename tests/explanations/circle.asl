global a;
global b;

fn put(v) {
  p = &a;
  q = &b;
  n = new 2;
  m = new 2;
  atomic {
    *n = v;
    *m = v;
    f = &n[1];
    x = *p;
    *f = x;
    *p = n;
    g = &m[1];
    y = *q;
    *g = y;
    *q = m;
  }
  return v;
}

fn sum_a() {
  p = &a;
  s = 0;
  atomic {
    x = *p;
    while x {
      v = *x;
      s = s + v;
      f = &x[1];
      x = *f;
    }
  }
  return s;
}

fn main(t) {
  o = new 1;
  r = put(o);
  r = sum_a();
  return t;
}
