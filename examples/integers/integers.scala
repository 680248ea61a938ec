// #Sireum
import org.sireum._
object Integers extends App {
  def main(args: ISZ[String]): Z = {
    val least: Z = -9223372036854775808
    val greatest: Z = 9223372036854775807
    println(least)
    println(greatest)
    val sum: Z = least + greatest
    println(sum)
    val difference: Z = greatest - 1
    println(difference)
    val product: Z = 3037000499 * 3037000499
    println(product)
    println("quotients and remainders")
    val seven: Z = 7
    val minusSeven: Z = -7
    var quotient: Z = seven / 2
    var remainder: Z = seven % 2
    println(quotient)
    println(remainder)
    quotient = minusSeven / 2
    remainder = minusSeven % 2
    println(quotient)
    println(remainder)
    quotient = seven / -2
    remainder = seven % -2
    println(quotient)
    println(remainder)
    remainder = least % -1
    println(remainder)
    val less: B = least < greatest
    println(less)
    return remainder
  }
}
