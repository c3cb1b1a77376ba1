void setup() {
  Serial.begin(9600);
  pinMode(2, INPUT);
}

void loop() {
  float volts = analogRead(A0) / 1024.0 * 5;
  float ohms = 10000 * volts / 5 / (1 - volts / 5);
  float lux = pow(50 * 1e3 * pow(10, 0.7) / ohms, 1 / 0.7);
  Serial.print(digitalRead(2) ? "dark, " : "light, ");
  Serial.print(lux, 0);
  Serial.println(" lux");
  delay(30);
}
