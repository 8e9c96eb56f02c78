package b
object C { val = 3; val c = -"a\n" }
