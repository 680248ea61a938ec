// #Sireum
import org.sireum._
object Hello extends App {
  def main(args: ISZ[String]): Z = {
    println("Hello from Slang.")
    println("Each line of this program is proved to be printed.")
    return 0
  }
}
