from pkg.tools import Box as B
b = B()
b.size()
