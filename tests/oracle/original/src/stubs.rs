//! Modules that the original's files name and that no run here calls.

/// Noise models.
pub mod noise {
    use crate::circuit::{SimError, Simulator};
    use crate::gate::Gate;
    use rand::RngCore;

    /// Error probabilities.
    pub struct NoiseModel {
        pub p_1q: f64,
        pub p_2q: f64,
        pub p_meas: f64,
        pub p_reset: f64,
    }

    impl NoiseModel {
        pub fn none() -> Self {
            NoiseModel { p_1q: 0.0, p_2q: 0.0, p_meas: 0.0, p_reset: 0.0 }
        }
    }

    pub fn apply_gate_noise<S: Simulator + ?Sized>(
        _: &mut S,
        _: &Gate,
        _: &NoiseModel,
        _: &mut dyn RngCore,
    ) -> Result<(), SimError> {
        unreachable!("noise is not part of the oracle")
    }

    pub fn sample_depolarizing_1q(_: f64, _: usize, _: &mut dyn RngCore) -> Option<Gate> {
        unreachable!("noise is not part of the oracle")
    }

    pub fn sample_depolarizing_2q(_: f64, _: usize, _: usize, _: &mut dyn RngCore) -> Vec<Gate> {
        unreachable!("noise is not part of the oracle")
    }
}

/// Circuit files.
pub mod io {
    /// OpenQASM.
    pub mod qasm {
        use crate::circuit::{Circuit, SimError};

        pub fn to_qasm(_: &Circuit) -> Result<String, SimError> {
            unreachable!("OpenQASM is not part of the oracle")
        }

        pub fn from_qasm(_: &str) -> Result<Circuit, SimError> {
            unreachable!("OpenQASM is not part of the oracle")
        }
    }
}
