const float beta = 3950;

void setup() {
  Serial.begin(9600);
}

void loop() {
  int value = analogRead(A0);
  float celsius = 1 / (log(1 / (1023.0 / value - 1)) / beta + 1.0 / 298.15) - 273.15;
  Serial.print("Temperature: ");
  Serial.print(celsius, 1);
  Serial.println(" C");
  delay(100);
}
