(foo)
01
