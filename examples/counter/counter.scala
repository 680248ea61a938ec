// #Sireum
import org.sireum._
object Counter extends App {
  def main(args: ISZ[String]): Z = {
    var sum: Z = 0
    for (i <- 1 until 11) {
      sum = sum + i
      println(sum)
    }
    var left: Z = 3
    while (left > 0) {
      println(left)
      left = left - 1
    }
    return sum
  }
}
