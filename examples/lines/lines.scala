// #Sireum
import org.sireum._
object Lines2 extends App {
  def main(args: ISZ[String]): Z = {
    println("every byte of a text is put by itself: %d ?? */ /* ' ~!")
    println("")
    println("the value 63 is the greatest")
    return 63
  }
}
