// #Sireum
import org.sireum._
object X extends App {
  def main(args: ISZ[String]): Z = {
    println("hello")
    return 0
  }
}
