//! Stand-in: how a virtual machine is isolated.

#[derive(Debug, Clone, Copy, PartialEq, Eq)]
pub enum IsolationType {
    None,
    Vbs,
    Snp,
    Tdx,
    Cca,
}
