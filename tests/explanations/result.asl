global left;
global right;

fn pick(which) {
  p = &left;
  if which { p = &right; }
  return p;
}

fn main(t) {
  r = pick(t);
  atomic { x = *r; }
  return t;
}
