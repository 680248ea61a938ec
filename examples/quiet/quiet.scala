// #Sireum
import org.sireum._
object Quiet extends App {
  def main(args: ISZ[String]): Z = {
    return 7
  }
}
