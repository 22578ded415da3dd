(foo 01)
