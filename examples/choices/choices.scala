// #Sireum
import org.sireum._
object Choices extends App {
  def main(args: ISZ[String]): Z = {
    val limit: Z = 20
    var temperature: Z = 17
    var heating: B = temperature < limit
    if (heating) {
      println("heat")
      temperature = temperature + 4
      if (temperature >= limit) {
        heating = F
      } else {
        println("more")
      }
    } else {
      println("wait")
    }
    println(heating)
    println(temperature)
    assert(temperature != limit)
    if (temperature == 21) {
      println("warm")
    }
    return 3
  }
}
