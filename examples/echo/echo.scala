// #Sireum
import org.sireum._
object Echo extends App {
  def main(args: ISZ[String]): Z = {
    var left: Z = 5
    var byte: Z = Port.get()
    var more: B = byte >= 0
    while (more) {
      println(byte)
      left = left - 1
      if (left == 0) {
        more = F
      } else {
        byte = Port.get()
        more = byte >= 0
      }
    }
    println(left)
    return 0
  }
}
