module Units {

  constant PASCALS_PER_BAR = 100000

  type Pascals = U32

}
