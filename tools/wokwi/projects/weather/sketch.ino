#include <DHT.h>
#include <LiquidCrystal_I2C.h>

DHT dht(7, DHT22);
LiquidCrystal_I2C lcd(0x27, 16, 2);

void setup() {
  Serial.begin(9600);
  dht.begin();
  lcd.init();
  lcd.backlight();
}

void loop() {
  float humidity = dht.readHumidity(), temperature = dht.readTemperature();
  if (isnan(humidity) || isnan(temperature)) {
    Serial.println("Failed to read from DHT sensor!");
    return;
  }
  line(0, temperature, " C");
  line(1, humidity, " %");
  Serial.println(dht.computeHeatIndex(temperature, humidity, false), 1);
  delay(300);
}

void line(int number, float value, const char *unit) {
  lcd.setCursor(0, number);
  lcd.print(value, 1);
  lcd.print(unit);
}
