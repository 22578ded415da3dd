(foo)
