"""Whole files of the project's own, of which changed ones are made: those under examples/, and some with forms that no example has."""
import glob
import os

from product import ROOT

SAMPLES = ["""// #Sireum
package a.b
import org.sireum._
import a.c._
import q
@enum object Light {
  'Red
  "Green"
}
@range(min = -40, max = 125, index = T) class Temp
@bits(signed = F, width = 8) class Byte
@datatype class P[E](val x: Z, var y: E, z: ISZ[ISZ[Z]]) extends A[E] with B {
  @strictpure override def v: Z = x + -1
  @pure def w[T](d: T): Option[T] = {
    return None[T]()
  }
}
""", """// #Sireum
import org.sireum._
@sig trait A
@msig trait B extends a.A[Z] {
  def f(): Unit
  @pure def g: Z
}
@record class R(val n: MSZ[Z])
object M {
  val low: Temp = temp"18"
  var high = -2
  override val x = 1
  def f(r: R): Unit = {
    Contract(
      Requires(0 <= b, b <= 255),
      Modifies(r)
    )
    r.n(0) = r.n(r.n.size - 1) + 1
    (this.n)(0).x = 'a'
    l\"\"\"{ anything (\"\"\"
    println(r, "\\u0041\\n", u8"7")
    return
  }
}
""", """// #Sireum
import org.sireum._
object X extends App {
  def main(args: ISZ[String]): Z = {
    val a: Z = if (args.size > 3) 1 else b match {
      case 1 => 2
      case -3 if a == 4 | !T => x(y = 5, z = ~u)
    }
    a match {
      case _: P =>
      case P(x, Q(), 'c') =>
        println(x)
        halt("no")
      case E.On => f()
      case "s" | y => g()
    }
    for (i <- 0 until 10) {
      while (a <= 3 && T || F |^ b) {
        s = s :+ i << 2 >>> 1
      }
    }
    if (a) {
    } else if (b) {
      f[Z](1)(2).g
    }
    return -a.b * 3 - 4 - 5 / 6 % 7
  }
}
""", """// #Sireum /* a
import org.sireum._ // b
object X extends App { def main(args: ISZ[String]): Z = {
    var a: Z = 1 /* /* c */
    */ + 2
    Invariant(a > 0)
    while (a > 0)
    {
      a =
        a - 1
      if (a == 1) { println("one") } else
      {
        println(a)
      }
      l"d"
    }
    for (i <- a until 3) { println(i) }
    return
      0 } }
"""]


def samples():
    """The bytes of each."""
    made = [text.encode() for text in SAMPLES]
    for name in sorted(glob.glob(os.path.join(ROOT, "examples", "*", "*.scala"))):
        with open(name, "rb") as file:
            made.append(file.read())
    return made
