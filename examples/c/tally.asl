global total;
global count;

fn add(n) {
  one = 1;
  p = &total;
  q = &count;
  w = square(n);
  atomic {
    x = bump(p, w);
    y = bump(q, one);
  }
  return x;
}

fn read(of) {
  p = &total;
  if of { p = &count; }
  atomic { x = *p; }
  return x;
}

fn square(n) { return n; }

fn bump(p, w) {
  x = *p;
  *p = w;
  return x;
}
