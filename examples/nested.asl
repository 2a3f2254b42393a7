global total;
global last;

fn add(p, v) {
  atomic {
    x = *p;
    y = x + v;
    *p = y;
  }
  return v;
}

fn main(t) {
  p = &total;
  q = &last;
  r = add(p, t);
  atomic {
    r = add(p, t);
    *q = t;
  }
  return t;
}
