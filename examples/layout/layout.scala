// #Sireum
/* Blanks, comments and layout are free. /* Comments nest. */ A statement may stand on several lines, where a line can't end it. */
import org.sireum._

object Layout extends App {

  // what is said of a program, and proofs, are passed over
  def main(args: ISZ[String]): Z = {
    Contract(
      Ensures(Res == 0)
    )
    var left: Z = 3
    var sum: Z =
      left +
        39
    while (left > 0) { println(left)
      left = left - 1 }
    if (sum == 42) { println("a sum of 42") }
    else {
      println("another one")
    }
    l"""sum == 42"""
    sum = sum -
      /* the last of them */ 42
    return sum
  }
}
