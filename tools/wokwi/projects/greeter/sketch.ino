void setup() {
  Serial.begin(9600);
  Serial.println("What is your name?");
}

void loop() {
  if (Serial.available()) {
    String name = Serial.readStringUntil('\n');
    Serial.print("Hello, ");
    Serial.println(name);
  }
}
