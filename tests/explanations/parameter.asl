global accounts;
global log;

fn keep(place, value) {
  *place = value;
  return place;
}

fn main(t) {
  a = &accounts;
  b = &log;
  account = new 2;
  entry = new 3;
  atomic { r = keep(a, account); }
  atomic { r = keep(b, entry); }
  return t;
}
