object D {
  val c = true
  val r = if (c)
    1
  else 2
}