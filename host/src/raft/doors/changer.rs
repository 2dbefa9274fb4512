// Behind src/confchange/changer.rs: the check alone, which the text runs inside each call.
impl Changer<'_> {
    pub fn check(&self) -> Result<()> {
        self.check_and_copy().map(|_| ())
    }
}
