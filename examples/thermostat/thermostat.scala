// #Sireum
// A thermostat, which counts how often it switched. It keeps all rules of tokens, layout and grammar. It isn't built yet: `check`, `run`
// and `emit` answer `not built`, with status 77. It runs once enums, ranges of integers, records, sequences that are assigned, and methods
// beside `main` are built.
package ctl

import org.sireum._

@enum object Mode {
  "Off"
  "Heat"
  "Cool"
}

@range(min = -40, max = 125) class Temp

@record class State(var mode: Mode.Type, var last: Temp, val hist: MSZ[Z], var at: Z, var switches: Z)

object Thermo extends App {

  val low: Temp = temp"18"
  val high: Temp = temp"24"

  @pure def next(m: Mode.Type, t: Temp): Mode.Type = {
    if (t < low) {
      return Mode.Heat
    }
    if (t > high) {
      return Mode.Cool
    }
    if (m == Mode.Heat & t < temp"20") {
      return m
    }
    return Mode.Off
  }

  def step(s: State, b: Z): Unit = {
    Contract(
      Requires(0 <= b, b <= 255),
      Modifies(s)
    )
    val t: Temp = conversions.Z.toTemp(b % 64 - 10)
    val m: Mode.Type = next(s.mode, t)
    if (m != s.mode) {
      s.switches = s.switches + 1
    }
    s.mode = m
    s.last = t
    s.hist(s.at) = conversions.Temp.toZ(t)
    s.at = (s.at + 1) % 8
  }

  def main(args: ISZ[String]): Z = {
    val s: State = State(Mode.Off, temp"0", MSZ(0, 0, 0, 0, 0, 0, 0, 0), 0, 0)
    var b: Z = Port.get()
    while (b >= 0) {
      step(s, b)
      b = Port.get()
    }
    println(s)
    return 0
  }
}
