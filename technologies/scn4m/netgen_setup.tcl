# Transistors: source and drain may change places, and areas and edges of diffusion aren't compared.
foreach model {nfet pfet} {
  foreach circuit {-circuit1 -circuit2} {
    catch {permute "$circuit $model" 1 3}
    catch {property "$circuit $model" remove as ad ps pd}
  }
}
permute default
