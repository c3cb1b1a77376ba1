// Prints without a pause; BAUD is set where it is compiled (examples/arduino.sh).
unsigned long count = 0;

void setup() {
  Serial.begin(BAUD);
}

void loop() {
  Serial.print("line ");
  Serial.println(count);
  count++;
}
