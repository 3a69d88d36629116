//! The figures of a phase, by name.

pub struct Report {
    pub name: String,
    pub values: Vec<(String, Value)>,
}
pub enum Value {
    Num(f64),
    Text(String),
}
impl Report {
    pub fn new(name: &str) -> Report {
        Report { name: name.into(), values: Vec::new() }
    }
    pub fn num(&mut self, k: &str, v: f64) {
        self.values.push((k.into(), Value::Num(v)));
    }
    pub fn text(&mut self, k: &str, v: &str) {
        self.values.push((k.into(), Value::Text(v.into())));
    }
    pub fn get(&self, k: &str) -> Option<f64> {
        self.values.iter().find_map(|(n, v)| match v {
            Value::Num(x) if n == k => Some(*x),
            _ => None,
        })
    }
    pub fn get_text(&self, k: &str) -> Option<&str> {
        self.values.iter().find_map(|(n, v)| match v {
            Value::Text(x) if n == k => Some(x.as_str()),
            _ => None,
        })
    }
}
