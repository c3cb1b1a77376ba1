// Obeys lines that come in on Serial: `on` and `off` switch the LED, `?` asks for it.
void setup() {
  pinMode(13, OUTPUT);
  Serial.begin(9600);
  Serial.println("ready");
}

void loop() {
  if (!Serial.available()) {
    return;
  }
  String line = Serial.readStringUntil('\n');
  if (line == "on") {
    digitalWrite(13, HIGH);
  } else if (line == "off") {
    digitalWrite(13, LOW);
  } else if (line != "?") {
    Serial.println("unknown: " + line);
    return;
  }
  Serial.println(digitalRead(13) ? "LED on" : "LED off");
}
