(foo)
