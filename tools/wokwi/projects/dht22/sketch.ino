// Reads a DHT22 as its data sheet has it: the wire is pulled low for a millisecond, and then 40 bits come, each a high time.
const byte pin = 2;
byte data[5];

bool readSensor() {
  pinMode(pin, OUTPUT);
  digitalWrite(pin, LOW);
  delayMicroseconds(1100);
  pinMode(pin, INPUT_PULLUP);
  if (!pulseIn(pin, HIGH, 1000)) return false;
  for (byte n = 0; n < 40; n++) {
    unsigned long high = pulseIn(pin, HIGH, 1000);
    if (!high) return false;
    data[n / 8] = data[n / 8] << 1 | (high > 45);
  }
  return data[4] == (byte)(data[0] + data[1] + data[2] + data[3]);
}

void setup() {
  Serial.begin(115200);
}

void loop() {
  delay(1000);
  if (!readSensor()) {
    Serial.println("no answer");
    return;
  }
  float temperature = ((data[2] & 0x7F) << 8 | data[3]) / 10.0;
  if (data[2] & 0x80) temperature = -temperature;
  Serial.print((data[0] << 8 | data[1]) / 10.0, 1);
  Serial.print(" % ");
  Serial.print(temperature, 1);
  Serial.println(" C");
}
