// #Sireum
import org.sireum._
object Overflow extends App {
  def main(args: ISZ[String]): Z = {
    var x: Z = 4611686018427387904
    println(x)
    x = x * 2
    println(x)
    return 0
  }
}
