# The lines of a full register: every user, role, capability and session is there, and hardly two are alike. Capability n is
# derived from role n below 32 and from capability n - 32 above; each has less than the one above it.
function whole(x) { return sprintf("%.0f", x) }
function bit(k) { return 2 ^ k }
function without(all, from, many, width,  k) { for (k = 0; k < many; k++) all -= bit((from + k) % width); return all }
function hours(r, less) { return without(16777215, r + 1, less, 24) }
function places(r, less) { return without(65535, r + 1, less, 16) }
function devices(r, less) { return without(65535, 3 * r + 1, less, 16) }
function context(r) { return r % 24 " " r % 16 " " 3 * r % 16 }
function creator(n) { return n < 32 ? n % 8 : holder(n - 32) }
function holder(n) { return (5 * n + 1) % 64 }

function found(r) {
  print "found", r, r % 8, hours(r, 1), places(r, 1), devices(r, 1)
  print "grant", r, 0
  print "grant", r, 1 + r % 31
  print "grant", r, 1 + (7 * r + 3) % 31
  print "appoint", r % 8, r
  print "appoint", r % 8 + 8 * (1 + r % 7), r
}

function create(n,  r, depth, limits) {
  r = n % 32
  depth = int(n / 32)
  limits = (60000 - 1000 * depth - n) " " (900 - 50 * depth - r) " " (64 - depth)
  print "create", creator(n), (n < 32 ? "role " r : "pass " (n - 32)), context(r), depth, whole(4294967295 - 1000 * n), limits, \
    hours(r, 2 + depth), places(r, 1 + depth), devices(r, 2 + depth)
  print "allow", creator(n), n, whole(depth < 6 ? 1 + bit(1 + r % 31) : 1)
  if (depth < r % 5) print "lend", creator(n), n, whole(bit(r))
  print "hand", creator(n), holder(n), n
  print "hand", creator(n), (11 * n + 2) % 64, n
  print "hand", creator(n), (3 * n + depth) % 64, n
}

function open(s,  n) {
  n = (4 * s + 1) % 256
  if (s % 4 == 0) print "open", s, s % 8, "role", s % 32, context(s % 32)
  else print "open", s, holder(n), "pass", n, context(n % 32)
}

BEGIN {
  print "clock 7"
  for (u = 0; u < 64; u++) print "enrol", u, u % 8
  for (r = 0; r < 32; r++) found(r)
  for (n = 0; n < 256; n++) create(n)
  for (s = 0; s < 64; s++) open(s)
  for (n = 40; n < 256; n += 24) print "revoke", creator(n), n
  print "clock 3000000000"
}
